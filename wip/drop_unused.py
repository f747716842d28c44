import re,subprocess,sys
out=subprocess.run(['python3','$REPO/wip/unused.py']+sys.argv[1:],capture_output=True,text=True).stdout
for l in out.strip().split('\n'):
    if not l: continue
    f,mod,n=l.split(' ')
    s=open(f).read()
    def fix(m):
        names=[x.strip() for x in m.group(2).split(',')]
        names=[x for x in names if x.split(' as ')[-1]!=n]
        return '' if not names else f"use {mod}.{{{', '.join(names)}}}\n"
    s=re.sub(r"^use ("+re.escape(mod)+r")\.\{([^}]*)\}\n",fix,s,flags=re.M)
    open(f,'w').write(s)
