#!/usr/bin/env python3
"""Writes the clauses that a check asks for ('write the clause'), behind the last clause of the definition that lacks them. usage: clauses.py LOG CRATE_FOLDER"""
import re,sys,os
log=open(sys.argv[1],encoding='utf-8').read().split('\n')
crate=sys.argv[2]
todo={}
i=0
while i<len(log):
    m=re.match(r'(\./\S+\.antt):(\d+):(\d+): error: `([^`]+)`: write the clauses?(?: `(.*)`)?$',log[i])
    if m:
        p,line,col,name=m[1],int(m[2]),int(m[3]),m[4]
        cl=[]
        if m[5]: cl=[m[5]]
        else:
            j=i+1
            while j<len(log) and (log[j].startswith('  ')):
                if not log[j].startswith('  no clause'): cl.append(log[j].strip())
                j+=1
        todo.setdefault(p,[]).append((line,name,cl))
    i+=1
for p,fs in todo.items():
    q=os.path.join(crate,p)
    L=open(q,encoding='utf-8').read().split('\n')
    for line,name,cl in sorted(fs,reverse=True):
        # find where clauses of the function (first word of clause) end, after `line`
        fn=cl[0].split(' ')[0]
        fnre=re.compile(r'^(\s*)'+re.escape(fn)+r'(\s|$)')
        # start at the signature line; find the last clause line of fn following
        k=line-1
        # find signature at or above/below
        s=None
        for d in range(0,40):
            for kk in (k+d,k-d):
                if 0<=kk<len(L) and re.match(r'^\s*(?:(?:abbrev|unfoldable|pub)\s+)*'+re.escape(fn)+r'(\s.*)?:\s',L[kk]):
                    s=kk;break
            if s is not None: break
        if s is None: print('no signature',p,line,fn); continue
        last=None;ind=None
        kk=s+1
        while kk<len(L):
            m=fnre.match(L[kk])
            if m: last=kk; ind=m[1]
            elif last is not None and L[kk].strip() and len(L[kk])-len(L[kk].lstrip())<=len(ind): break
            kk+=1
        if last is None: print('no clauses',p,line,fn); continue
        # end of last clause: following lines indented deeper
        e=last+1
        while e<len(L) and L[e].strip() and len(L[e])-len(L[e].lstrip())>len(ind): e+=1
        L[e:e]=[ind+c for c in cl]
        print(p,fn,len(cl))
    open(q,'w',encoding='utf-8').write('\n'.join(L))
