class N { N n; int v; } @ThreadSafe class K { N n; void set() { this.n.n.n.n.n.n.n.n.n.n.n.n.n.n.n.n.v = 1; } }
