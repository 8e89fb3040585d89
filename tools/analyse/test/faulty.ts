let twice = 1;
let twice = 2;
unused: for (;;) {}
class C { abstract m(): void; }
