import re,os,glob
root='$REPO/crates/'
out='$WORK/same/src/'
def conv(t,crate):
    t=re.sub(r"\n    (requires|ensures) \{.*?⌝ \}(?=\n)","",t,flags=re.S)
    t=re.sub(r"^ghost use .*\n","",t,flags=re.M)
    t=re.sub(r"\bcrate::",'crate::%s::'%crate,t)
    t=re.sub(r"^use (bits|description|reader)::",r"use crate::\1::",t,flags=re.M)
    t=re.sub(r"(?<![:\w])bits::(Lowest|signed|unsigned)",r"crate::bits::\1",t)
    t=re.sub(r"(?<![:\w])description::(examine)",r"crate::description::\1",t)
    t=re.sub(r"std::num::wrapping_(add|sub)_u32\((\w+), (\w+)\)",r"\2.wrapping_\1(\3)",t)
    t=re.sub(r"^(pub )?(struct|enum) ",r"#[derive(Clone, Copy)]\n\1\2 ",t,flags=re.M)
    return t
for c in ['bits','description','reader']:
    os.makedirs(out+c,exist_ok=True)
    for f in glob.glob(root+c+'/src/*.rt'):
        n=os.path.basename(f)[:-3]
        t=conv(open(f).read(),c)
        open(out+c+'/'+('mod' if n=='lib' else n)+'.rs','w').write(t)
