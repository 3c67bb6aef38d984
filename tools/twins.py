#!/usr/bin/env python3
# twins.py FOLDER: pairs of functions of one shape below FOLDER/crates/*/src: bodies that are the same, or nearly so,
# once names, numbers and texts are left out. A line tells how alike they are, how long the first is, and both places.
import re,sys,glob,difflib,os
KW=set("fn let mut match if else for in while loop return break Some None Ok Err self Self as pub impl where const ref move true false".split())
def funcs(src):
    src=re.sub(r'//[^\n]*','',src)
    for m in re.finditer(r'\bfn\s+(\w+)',src):
        # body: first '{' at clause level that starts the body: skip requires/ensures {...}
        i=m.end(); depth=0
        while i<len(src):
            c=src[i]
            if c=='{':
                head=src[m.end():i].rstrip()
                j=i;d=0
                while j<len(src):
                    if src[j]=='{': d+=1
                    elif src[j]=='}':
                        d-=1
                        if d==0: break
                    j+=1
                if re.search(r'(requires|ensures\*?)(\s+\w+)?$|ghost\s+\w+:$',head): i=j+1; continue
                yield m.group(1),src[i:j+1]; break
            if c==';' : break
            i+=1
def norm(b):
    out=[]
    for t in re.findall(r"'?[A-Za-z_]\w*|\d[\w.]*|\"[^\"]*\"|b'.'|[^\s\w]",b):
        if t in KW: out.append(t)
        elif re.match(r"[A-Za-z_']",t): out.append('I')
        elif re.match(r"\d|b'",t): out.append('N')
        elif t[0]=='"': out.append('S')
        else: out.append(t)
    return out
fs=[]
for p in sorted(glob.glob(sys.argv[1]+'/crates/*/src/*.rt')):
    for n,b in funcs(open(p).read()):
        t=norm(b)
        if len(t)>=9: fs.append((os.path.relpath(p,sys.argv[1])+'::'+n,t))
for i in range(len(fs)):
    for j in range(i+1,len(fs)):
        a,b=fs[i][1],fs[j][1]
        if min(len(a),len(b))/max(len(a),len(b))<0.8: continue
        r=difflib.SequenceMatcher(None,a,b,autojunk=False).ratio()
        if r>=0.9: print(f'{r:.2f} {len(a)} {fs[i][0]}  {fs[j][0]}')
