import sys
exec(open('$WORK/mylab/forms.py').read())
s=open('$WORK/mylab/bits.orig').read()
a=s.index("    let mut n: u64 = 0;"); b=s.index("// The bit i after offset o.")
v=s[:a]+forms[sys.argv[1]]+"}\n\n"+s[b:]
open('$WORK/mylab/crates/bits/src/lib.rt','w').write(v)
