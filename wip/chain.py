import re,sys
t=open(sys.argv[1]).read()
# find record declarations: name and fields
for m in re.finditer(r'^\s*(?:pub )?record ([^\s:(]+).*?where\n((?:\s+pub [^\n]*\n|\s{6,}[^\n]*\n)*)',t,re.M):
    fields=re.findall(r'^\s+pub ([^\s:]+) :\s*([^\s]+)',m.group(2),re.M)
    print(m.group(1),fields)
