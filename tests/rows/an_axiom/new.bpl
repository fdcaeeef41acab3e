axiom true;
