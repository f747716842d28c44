import re,sys,glob
for f in sys.argv[1:]:
    t=open(f).read()
    uses=re.findall(r'^(?:ghost )?use (.*?)\.?\{(.*?)\}',t,re.M)
    body='\n'.join(l for l in t.split('\n') if not re.match(r'^(ghost )?use ',l))
    for mod,names in uses:
        for n in [x.strip() for x in names.split(',')]:
            n=n.split(' as ')[-1]
            parts=[p for p in n.split('_') if p] if '_' in n else [n]
            ok=all(re.search(r'(?<![\w·-])'+re.escape(p)+r'(?![\w·-])' if re.match(r'[\w·-]',p) else re.escape(p),body) for p in parts)
            if not ok: print(f,mod,n)
