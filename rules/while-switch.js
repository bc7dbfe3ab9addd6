a: while(t){ switch(s){ case c: continue a; } x; }
