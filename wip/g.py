import re,sys
t=open('$WORK/goals').read()
for m in re.finditer(r'(?ms)^(/work\S+('+sys.argv[1]+r')/Proof.antt:\d+:\d+: goal .*?)(?=\n/work|\nfn |\n--\n|\Z)',t):
    s=m.group(1)
    s=re.sub(r'(?ms)\n    \(computed from:.*','',s)
    s=re.sub(r'(?ms)\n    c : \S*Lts\.(\S+) .*?\n(?=    κs|  ⊢)',r'\n    c : \1\n',s)
    s=re.sub(r'(?: \.before){2,}',lambda k:' .b%d'%(len(k.group(0))//8),s)
    print(s[:int(sys.argv[2])])
