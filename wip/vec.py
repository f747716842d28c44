import subprocess,sys
lines=[l for l in open(sys.argv[1]) if not l.startswith('#') and l.strip()]
ins='\n'.join(' '.join(l.split(' = ')[0].split()) for l in lines)+'\n'
out=subprocess.run(['$WORK/vec'],input=ins,capture_output=True,text=True).stdout.split('\n')
bad=0
for l,o in zip(lines,out):
    if l.split(' = ')[1].split()!=o.split(): 
        bad+=1
        if bad<4: print(l[:300]); print(o[:300])
print(len(lines),'lines',len([o for o in out if o]),'answers',bad,'differ')
