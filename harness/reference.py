#!/usr/bin/env python3
"""An independent matcher written from documents 01 and 02: parse, walk, match, list, explain, scan, batch, check, rule cards."""
import sys
sys.setrecursionlimit(1000000)
U=4294967295
S,M,I,X,DEPOT=1,2,4,8,16
FLAGS=32 # refused from here on
GROUPS,NAME=64,16 # the most groups, and the bytes of the longest name
ROW=2+2*GROUPS; PART=ROW+4; ENTRY=1+NAME; INDEX=GROUPS*ENTRY # the lengths of a row, a line's part, an entry of the name index, the index
RULE_AREA,CARD_AREA,RULE_BYTES=16384,1064,1000
class Refuse(Exception):
    def __init__(s,n,p): s.n=n; s.p=p
def rng(*ps):
    out=set()
    for a,b in ps: out|=set(range(a,b+1))
    return frozenset(out)
D=rng((0x30,0x39)); UP=rng((0x41,0x5a)); LO=rng((0x61,0x7a)); AL=UP|LO
SETS={'digit':D,'word':D|AL|{0x5f},'space':rng((9,13),(32,32)),'alpha':AL,'upper':UP,'lower':LO,'alnum':D|AL,'xdigit':rng((0x30,0x39),(0x41,0x46),(0x61,0x66)),'blank':frozenset({9,32}),'cntrl':rng((0,31),(127,127)),'ascii':rng((0,127)),'print':rng((0x20,0x7e)),'graph':rng((0x21,0x7e)),'punct':rng((0x21,0x2f),(0x3a,0x40),(0x5b,0x60),(0x7b,0x7e))}
H=frozenset({9,32,0xa0}); V=rng((10,13),(0x85,0x85)); ALL=frozenset(range(256))
def fold(t): return frozenset(t)|frozenset(b^32 for b in t if b in AL)
WORD='0123456789abcdefghijklmnopqrstuvwxyzABCDEFGHIJKLMNOPQRSTUVWXYZ_'
LET={'d':D,'w':SETS['word'],'s':SETS['space'],'h':H,'v':V}
def line_break(at):
    """\\R as 02 writes it: (?>\\x0D\\x0A|[\\x0A-\\x0D\\x85]), all of it at its place"""
    def one(*bs): return ('set',at,frozenset(bs))
    return ('held',at,('alt',[('seq',[one(13),one(10)]),('seq',[one(10,11,12,13,0x85)])],[]))
class Parser:
    def __init__(s,r,flags): s.r=r; s.flags=flags; s.i=0; s.opened=0; s.refs=[]; s.names={}
    def fold(s,t): return fold(t) if s.flags&I else frozenset(t)
    def blanks(s):
        """under x: moves past blanks and comments"""
        while s.flags&X and s.ch(s.i) and s.ch(s.i) in '\t\n\v\f\r #':
            if s.ch(s.i)!='#': s.i+=1; continue
            e=s.r.find(b'\n',s.i); s.i=len(s.r) if e<0 else e+1
    def b(s,i): return s.r[i] if i<len(s.r) else None
    def ch(s,i): return chr(s.r[i]) if i<len(s.r) else ''
    def run(s,i,digs):
        j=i
        while j<len(s.r) and chr(s.r[j]) in digs: j+=1
        return s.r[i:j].decode('latin1'),j
    def parse(s):
        t=s.alt(0,None)
        if s.i<len(s.r): raise Refuse(21,s.i)
        for p,n in s.refs: # they are met by rising places
            if not 1<=s.number(n)<=s.opened: raise Refuse(13,p)
        if s.flags&DEPOT:
            if s.refs: raise Refuse(27,s.refs[0][0])
            idle=[r[1] for r in repeats(t) if r[3] is None and least(r[5])==0]
            if idle: raise Refuse(28,min(idle))
        return s.resolved(t),s.opened
    def number(s,n): return s.names.get(n,0) if isinstance(n,bytes) else n
    def resolved(s,t):
        """the tree with numbers in place of names, which may stand behind a reference"""
        if isinstance(t,list): return [s.resolved(x) for x in t]
        if not isinstance(t,tuple): return t
        if t[0]=='ref': return t[:2]+(s.number(t[2]),)+t[3:]
        return t[:1]+tuple(s.resolved(x) for x in t[1:])
    def name(s,i,close,at):
        """the name from i on, closed by this sign, and where it ends; 25 at the place"""
        n,j=s.run(i,WORD)
        if not 1<=len(n)<=NAME or n[0] in '0123456789' or s.ch(j)!=close: raise Refuse(25,at)
        return n.encode(),j+1
    def alt(s,depth,opening):
        bs=[s.seq(depth)]; bars=[]
        while s.ch(s.i)=='|':
            bars.append(s.i); s.i+=1; bs.append(s.seq(depth))
        return ('alt',bs,bars) if bars else bs[0]
    def quant(s):
        """None | 'stray' | (lo,hi,ok,end)"""
        c=s.ch(s.i)
        if c=='*': return 0,None,True,s.i+1
        if c=='+': return 1,None,True,s.i+1
        if c=='?': return 0,1,True,s.i+1
        if c!='{': return None
        a,j=s.run(s.i+1,'0123456789')
        if not a: return 'stray'
        n=int(a)
        if s.ch(j)=='}': return n,n,n<=255,j+1
        if s.ch(j)!=',': return 'stray'
        b,k=s.run(j+1,'0123456789')
        if s.ch(k)!='}': return 'stray'
        if not b: return n,None,n<=255,k+1
        m=int(b)
        return n,m,(n<=255 and m<=255 and n<=m),k+1
    def seq(s,depth):
        items=[]; last='none'
        while True:
            s.blanks()
            if s.i>=len(s.r) or s.ch(s.i) in '|)': break
            at=s.i; q=s.quant()
            if q=='stray': raise Refuse(18,at)
            if q is not None:
                n,m,ok,e=q
                if last in('none','place'): raise Refuse(17,at)
                if not ok: raise Refuse(18,at)
                if last=='rep': raise Refuse(19,at)
                lazy=s.ch(e)=='?'; possessive=s.ch(e)=='+'
                items[-1]=('rep',at,n,m,lazy,items[-1]); last='rep'; s.i=e+(lazy or possessive)
                if possessive: items[-1]=('held',e,items[-1])
                continue
            if s.ch(at)=='(':
                items.append(s.group(depth)); last='item'; continue
            it=s.atom(); items.append(it); last='place' if it[0]=='place' else 'item'
        return ('seq',items)
    def group(s,depth):
        at=s.i; plain=s.ch(at+1)!='?'; named=not plain and s.ch(at+2)=='<'
        if not plain and not named:
            form=s.ch(at+2)
            if not form or form not in ':>=!': raise Refuse(22,at)
            if depth>=24: raise Refuse(24,at)
            s.i=at+3; t=s.alt(depth+1,at); g={':':t,'>':('held',at,t),'=':('look',at,False,t),'!':('look',at,True,t)}[form]
        else:
            if s.opened>=GROUPS: raise Refuse(23,at)
            if depth>=24: raise Refuse(24,at)
            s.opened+=1; k=s.opened; s.i=at+1
            if named:
                n,s.i=s.name(at+3,'>',at)
                if n in s.names: raise Refuse(26,at)
                s.names[n]=k
            t=s.alt(depth+1,at); g=('group',k,t)
        if s.ch(s.i)!=')': raise Refuse(20,at)
        s.i+=1
        return g
    def atom(s):
        at=s.i; c=s.ch(at)
        if c=='\\': return s.escape(at)
        if c=='[':
            return ('set',at,s.klass(at))
        s.i=at+1
        if c=='.': return ('set',at,ALL if s.flags&S else ALL-{10})
        if c=='^': return ('place',at,'mstart' if s.flags&M else 'A')
        if c=='$': return ('place',at,'mend' if s.flags&M else 'Z')
        return ('set',at,s.fold({s.r[at]}))
    def common(s,at):
        """escapes shared: returns ('b',byte) or ('s',set); sets s.i"""
        if at+1>=len(s.r): raise Refuse(10,at)
        c=s.ch(at+1)
        if not (c.isascii() and (c.isalnum() or c=='_')): s.i=at+2; return 'b',s.r[at+1]
        one={'a':7,'e':0x1b,'f':0xc,'n':10,'r':13,'t':9}
        if c in one: s.i=at+2; return 'b',one[c]
        if c in LET: s.i=at+2; return 's',LET[c]
        if c.lower() in LET and c.isupper(): s.i=at+2; return 's',ALL-LET[c.lower()]
        HX='0123456789abcdefABCDEF'
        if c in 'xo':
            base,digs=(16,HX) if c=='x' else (8,'01234567')
            if s.ch(at+2)=='{':
                d,j=s.run(at+3,digs)
                if not d or s.ch(j)!='}' or int(d,base)>255: raise Refuse(12,at)
                s.i=j+1; return 'b',int(d,base)
            if c=='o': raise Refuse(12,at)
            d=s.r[at+2:at+4].decode('latin1')
            if len(d)!=2 or any(x not in HX for x in d): raise Refuse(12,at)
            s.i=at+4; return 'b',int(d,16)
        if c=='c':
            x=s.ch(at+2)
            if x=='' : raise Refuse(12,at)
            if x.isascii() and x.isalpha(): v=ord(x.upper())^64
            elif x in '@[]^_?': v=ord(x)^64
            else: raise Refuse(12,at)
            s.i=at+3; return 'b',v
        raise Refuse(11,at)
    def octal(s,at,k):
        d,j=s.run(at+1,'01234567'); d=d[:3]; v=int(d,8)
        if v>255: raise Refuse(12,at)
        s.i=at+1+len(d); return v
    def escape(s,at):
        c=s.ch(at+1)
        if c=='N': s.i=at+2; return ('set',at,ALL-{10})
        if c=='R': s.i=at+2; return line_break(at)
        if c and c in 'AzZbB': s.i=at+2; return ('place',at,c)
        if c=='0': return ('set',at,s.fold({s.octal(at,3)}))
        if c and c in '123456789':
            d,j=s.run(at+1,'0123456789'); s.i=j; return s.ref(at,int(d))
        if c=='k':
            close={'{':'}','<':'>',"'":"'"}.get(s.ch(at+2))
            if close is None: raise Refuse(25,at)
            n,s.i=s.name(at+3,close,at); return s.ref(at,n)
        if c=='g':
            i=at+2; br=s.ch(i)=='{'
            if br: i+=1
            if br and s.ch(i) and s.ch(i) in WORD[10:]: n,s.i=s.name(i,'}',at); return s.ref(at,n)
            neg=s.ch(i)=='-'
            if neg: i+=1
            d,j=s.run(i,'0123456789')
            if not d: raise Refuse(12,at)
            if br:
                if s.ch(j)!='}': raise Refuse(12,at)
                j+=1
            n=int(d)
            if neg: n=0 if n==0 else s.opened+1-n
            s.i=j; return s.ref(at,n)
        k,v=s.common(at)
        return ('set',at,s.fold({v}) if k=='b' else v)
    def ref(s,at,n): s.refs.append((at,n)); return ('ref',at,n,bool(s.flags&I))
    def element(s,op):
        at=s.i
        if at>=len(s.r): raise Refuse(14,op)
        c=s.ch(at)
        if c=='\\':
            x=s.ch(at+1)
            if x=='b': s.i=at+2; return 'b',8
            if x and x in '01234567': return 'b',s.octal(at,3)
            return s.common(at)
        if c=='[' and s.ch(at+1)==':':
            j=at+2; neg=False
            if s.ch(j)=='^': neg=True; j+=1
            n,k=s.run(j,'abcdefghijklmnopqrstuvwxyz')
            if s.ch(k)==':' and s.ch(k+1)==']':
                if n not in SETS: raise Refuse(16,at)
                t=s.fold(SETS[n]); s.i=k+2; return 's',(ALL-t if neg else t)
        s.i=at+1; return 'b',s.r[at]
    def klass(s,op):
        s.i=op+1; neg=False; out=set()
        if s.ch(s.i)=='^': neg=True; s.i+=1
        first=True
        while True:
            if not first and s.ch(s.i)==']': s.i+=1; break
            first=False; at=s.i
            lo=s.element(op)
            if s.ch(s.i)=='-' and s.ch(s.i+1)!=']':
                s.i+=1; hi=s.element(op)
                if lo[0]=='s' or hi[0]=='s' or lo[1]>hi[1]: raise Refuse(15,at)
                if s.flags&DEPOT and not any({lo[1],hi[1]}<=t for t in (D,UP,LO)): raise Refuse(29,at)
                out|=set(range(lo[1],hi[1]+1))
            elif lo[0]=='b': out.add(lo[1])
            else: out|=lo[1]
        out=s.fold(out)
        return ALL-out if neg else out
def repeats(t):
    """all repeats of a tree"""
    if isinstance(t,list): return [r for x in t for r in repeats(x)]
    if not isinstance(t,tuple): return []
    return ([t] if t[0]=='rep' else [])+[r for x in t[1:] for r in repeats(x)]
def places(t,of):
    """all places in a tree that `of` finds at its nodes"""
    if isinstance(t,list): return [p for x in t for p in places(x,of)]
    if not isinstance(t,tuple): return []
    return of(t)+[p for x in t[1:] for p in places(x,of)]
def least(t):
    """the least length of a part"""
    y=t[0]
    if y in('set','place','ref'): n=int(y=='set')
    elif y=='seq': n=sum(map(least,t[1]))
    elif y=='alt': n=min(map(least,t[1]))
    elif y in('group','held'): n=least(t[2])
    elif y=='look': n=0
    else: n=t[2]*least(t[5])
    return min(n,65536)
W=SETS['word']
class Done(Exception): pass
class First(Exception):
    """the first end of a part: where, and the captures"""
    def __init__(s,at,caps): s.at=at; s.caps=caps
class Walk:
    """steps in order: calls on_end(at,caps) at each end; raises Done when the callback says so or the budget ends. missed has the items that
    failed: where in the line they were tried, and where in the rule they stand"""
    def __init__(s,sub,tree,budget): s.sub=sub; s.tree=tree; s.left=budget; s.steps=0; s.cut=False; s.missed=[]
    def step(s):
        if s.left==0: s.cut=True; raise Done
        s.left-=1; s.steps+=1
    def holds(s,k,i):
        u=s.sub; n=len(u)
        if k=='A': return i==0
        if k=='z': return i==n
        if k=='Z': return i==n or (i==n-1 and u[i]==10)
        if k=='mstart': return i==0 or (i<n and u[i-1]==10)
        if k=='mend': return i==n or u[i]==10
        l=i>0 and u[i-1] in W; r=i<n and u[i] in W
        return (l!=r)==(k=='b')
    def go(s,t,i,caps,k):
        # generator free CPS; k(i,caps)
        y=t[0]
        if y=='seq': return s.items(t[1],0,i,caps,k)
        if y=='alt':
            for b in t[1]:
                s.step(); s.go(b,i,caps,k)
            return
        if y=='group':
            n=t[1]; s.step()
            def closed(j,c):
                s.step(); c=dict(c); c[n]=(i,j); k(j,c)
            return s.go(t[2],i,caps,closed)
        if y=='held':
            s.step(); f=s.first(t[2],i,caps)
            return f and k(*f)
        if y=='look':
            s.step(); tried=len(s.missed); f=s.first(t[3],i,caps)
            if t[2] and f: s.missed.insert(tried,(i,t[1])); return # it was tried before all that is inside
            return k(i,caps) if t[2] else f and k(i,f[1])
        if y in('set','place','ref'):
            s.step(); j=s.tried(t,i,caps)
            if j is None: s.missed.append((i,t[1])); return
            return k(j,caps)
        if y=='rep':
            _,p,lo,hi,lazy,body=t
            def decide(n,idle,i,caps):
                s.step()
                def rnd(): s.go(body,i,caps,lambda j,c: decide(n+1,j==i,j,c))
                if n<lo: return rnd()
                if hi is not None and n>=hi: return k(i,caps)
                if idle: return k(i,caps)
                if lazy: k(i,caps); rnd()
                else: rnd(); k(i,caps)
            return decide(0,False,i,caps)
        raise Exception(y)
    def first(s,t,i,caps):
        """where the first derivation of a part ends, and its captures, with the step of the inner end; None if it has none"""
        def end(j,c): s.step(); raise First(j,c)
        try: s.go(t,i,caps,end)
        except First as f: return f.at,f.caps
    def tried(s,t,i,caps):
        """where an item that is tried at i leads, or None if it fails; each byte that a reference compares is a step"""
        if t[0]=='set': return i+1 if i<len(s.sub) and s.sub[i] in t[2] else None
        if t[0]=='place': return i if s.holds(t[2],i) else None
        if t[2] not in caps: return None
        a,b=caps[t[2]]; u=s.sub.upper() if t[3] else s.sub # bytes.upper moves a to z alone
        for x in range(b-a):
            if i+x==len(u): return None # nothing is compared with what is not there
            s.step()
            if u[a+x]!=u[i+x]: return None
        return i+b-a
    def items(s,l,x,i,caps,k):
        if x==len(l): return k(i,caps)
        return s.go(l[x],i,caps,lambda j,c: s.items(l,x+1,j,c,k))
    def run(s,start,on_end):
        def fin(i,c):
            s.step(); on_end(i,c)
        s.go(s.tree,start,{},fin)
def row(start,i,caps):
    out=[start,i]
    for g in range(1,GROUPS+1):
        a,b=caps.get(g,(U,U)); out+=[a,b]
    return tuple(out)
def read(rule,flags): return Parser(rule,flags).parse()
def index(rule,flags):
    """the name index of a sound rule: an entry for each group that a rule can have"""
    p=Parser(rule,flags); p.parse(); by={k:n for n,k in p.names.items()}
    return b''.join((bytes([len(n)])+n).ljust(ENTRY,b'\0') for n in (by.get(k,b'') for k in range(1,GROUPS+1)))
def field(name,idx,line,kind,row,standing):
    """the field lookup: 0 for the line or 1 for the standing text, from, to"""
    entries=[idx[i:i+ENTRY] for i in range(0,min(len(idx),INDEX)-NAME,ENTRY)]
    hits=[k for k,e in enumerate(entries) if 1<=e[0]<=NAME and e[1:1+e[0]]==name]
    if not hits or kind!=0 or len(row)<ROW: return 1,0,0
    start,end=row[0],row[1]
    pairs=[(row[2*k+2],row[2*k+3]) for k in range(GROUPS)]
    if start>end or end>len(line): return 1,0,0
    if any(p!=(U,U) and not p[0]<=p[1]<=len(line) for p in pairs): return 1,0,0
    a,b=pairs[hits[0]]
    return (1,0,len(standing)) if (a,b)==(U,U) else (0,a,b)
def match(rule,flags,sub,budget,walks=None):
    """walks, if lent, gets the walk of each start"""
    t,g=read(rule,flags); total=0
    for st in range(len(sub)+1):
        w=Walk(sub,t,budget); hit=[]
        def e(i,c): hit.append(row(st,i,c)); raise Done
        try: w.run(st,e)
        except Done: pass
        total+=w.steps
        if walks is not None: walks.append(w)
        if hit: return ('M',total,hit[0])
        if w.cut: return ('X',st,total)
    return ('N',total)
def listing(rule,flags,sub,budget,room):
    t,g=read(rule,flags); total=0; rows=[]
    for st in range(len(sub)+1):
        w=Walk(sub,t,budget); seen=set(); full=[]
        def e(i,c):
            r=row(st,i,c)
            if r in seen: return
            if len(rows)==room: full.append(1); raise Done
            seen.add(r); rows.append(r)
        try: w.run(st,e)
        except Done: pass
        total+=w.steps
        if full: return ('F',total,rows)
        if w.cut: return ('X',st,total,rows)
    return ('C',total,rows)
def explain(rule,flags,sub,budget):
    """as match without a row; if not matched also the furthest place with its first item, the closest attempt (start, place, item), and the items
    that failed at that place in that attempt"""
    walks=[]; got=match(rule,flags,sub,budget,walks)
    if got[0]!='N': return got[:2] if got[0]=='M' else got
    missed=[(st,i,p) for st,w in enumerate(walks) for i,p in w.missed]
    far=max(i for st,i,p in missed); long=max(i-st for st,i,p in missed)
    item=next(p for st,i,p in missed if i==far)
    close=next(m for m in missed if m[1]-m[0]==long)
    return ('N',got[1],(far,item),close,sorted({p for st,i,p in missed if (st,i)==close[:2]}))
def scan(rule,flags,sub,budget,room):
    """successive matches: each search from where the last match ended, and after an empty match with the empty end barred at that place"""
    t,g=read(rule,flags); total=0; rows=[]; st=0; bar=False
    while st<=len(sub):
        w=Walk(sub,t,budget); hit=[]
        def e(i,c):
            if bar and i==st: return
            hit.append(row(st,i,c)); raise Done
        try: w.run(st,e)
        except Done: pass
        total+=w.steps
        if w.cut: return ('X',st,total,rows)
        if not hit: st+=1; bar=False; continue
        if len(rows)==room: return ('F',total,rows)
        rows.append(hit[0]); bar=hit[0][1]==st; st=hit[0][1]
    return ('C',total,rows)
class NoReading(Exception): pass
class Path(Walk):
    """one path of the walk, by its choices"""
    def __init__(s,sub,tree,budget,choices): super().__init__(sub,tree,budget); s.choices=iter(choices); s.caps={}
    def choice(s,n):
        c=next(s.choices,n)
        if c>=n: raise NoReading
        return c
    def follow(s,t,i):
        """where a part leads from i"""
        y=t[0]
        if y=='seq':
            for x in t[1]: i=s.follow(x,i)
            return i
        if y=='alt':
            b=t[1][s.choice(len(t[1]))]; s.step(); return s.follow(b,i)
        if y=='group':
            s.step(); j=s.follow(t[2],i); s.step(); s.caps[t[1]]=(i,j); return j
        if y=='rep':
            _,p,lo,hi,lazy,body=t; n=0; idle=False
            while True:
                s.step()
                if n>=lo and (n==hi or idle or s.choice(2)==0): return i
                j=s.follow(body,i); idle=j==i; i=j; n+=1
        s.step(); j=s.tried(t,i,s.caps)
        if j is None: raise NoReading
        return j
def check(rule,flags,sub,budget,proposal):
    """('Y',steps,row) for a reading, ('O',steps) for none, ('X',start,steps)"""
    t,g=read(rule,flags)
    for n,of in ((35,lambda x: [x[1]] if x[0] in('held','look') else []),(36,lambda x: x[2][255:256] if x[0]=='alt' else [])):
        if places(t,of): raise Refuse(n,min(places(t,of)))
    start=int.from_bytes(proposal[:2],'little')
    if len(proposal)<2 or start>len(sub): return ('O',0)
    p=Path(sub,t,budget,proposal[2:])
    try:
        i=p.follow(t,start); p.step()
        if next(p.choices,None) is not None: raise NoReading
    except NoReading: return ('O',p.steps)
    except Done: return ('X',start,p.steps)
    return ('Y',p.steps,row(start,i,p.caps))
def lines(buf):
    """the lines of a buffer: a last piece without 0A counts if not empty"""
    ls=buf.split(b'\n')
    return ls if ls[-1] else ls[:-1]
def batch(rule,flags,buf,budget):
    """what match gives for each line; ('R',2) for one that is too long"""
    read(rule,flags)
    return [('R',2) if len(l)>65535 else match(rule,flags,l,budget) for l in lines(buf)]
BODY={1:4,2:32,3:2} # the kinds of a card's records, with the lengths of their bodies
def first_of(tests):
    """raises the first refusal that is due"""
    for n,due in tests:
        if due: raise Refuse(n,0)
def card_write(rule,flags,budget,rule_area,area):
    """the card; the areas are lengths"""
    first_of([(9,area<CARD_AREA),(1,len(rule)>1000),(3,flags>=FLAGS),(4,budget>65535),(5,rule_area<RULE_AREA)])
    groups=read(rule,flags)[1]; padded=rule+bytes(-len(rule)%32)
    chunks=b''.join(b'\2'+padded[i:i+32] for i in range(0,len(padded),32))
    return bytes([1,flags])+budget.to_bytes(2,'little')+bytes([groups])+chunks+b'\3'+len(rule).to_bytes(2,'little')
def card_read(card,rule_area,area):
    """what a card says: rule, flags, budget, groups"""
    first_of([(9,area<RULE_BYTES)])
    at=0; kinds=[]; bodies=[]
    while 3 not in kinds:
        kind=card[at] if at<len(card) else None
        first_of([(30,kind is not None and kind not in BODY),(31,kind is None or at+BODY.get(kind,0)>=len(card))])
        kinds.append(kind); bodies.append(card[at+1:at+1+BODY[kind]]); at+=1+BODY[kind]
    n=int.from_bytes(bodies[-1],'little'); text=b''.join(bodies[1:-1])
    first_of([(32,kinds!=[1]+[2]*-(-n//32)+[3]),(33,any(text[n:]) or at<len(card))])
    flags,low,high,groups=bodies[0]
    first_of([(1,n>1000),(3,flags>=FLAGS),(5,rule_area<RULE_AREA)])
    first_of([(34,read(text[:n],flags)[1]!=groups)])
    return text[:n],flags,low+256*high,groups
