# What the service tool has to answer, written from the rules and apart from the tool: reads command lines, prints the
# expected answers. crates/service/stdout was made by it.
import sys,re
NAMES="CONNECT CONNACK PUBLISH PUBACK PUBREC PUBREL PUBCOMP SUBSCRIBE SUBACK UNSUBSCRIBE UNSUBACK PINGREQ PINGRESP DISCONNECT".split()
LEGAL=[0x10,0x20]+list(range(0x30,0x36))+list(range(0x3A,0x3E))+[0x40,0x50,0x62,0x70,0x82,0x90,0xA2,0xB0,0xC0,0xD0,0xE0]
def esc(b):
    if b==b"": return "-"
    if b==b"-": return "\\x2d"
    return "".join(chr(c) if 0x21<=c<=0x7e and c!=0x5c else "\\x%02x"%c for c in b)
def types():
    return "".join(" ".join(str(b>>4 if b in LEGAL else 0) for b in range(16*r,16*r+16))+"\n" for r in range(16))
def length(bs):
    n=0
    for i in range(4):
        if i>=len(bs): return None
        n+=(bs[i]&127)<<(7*i)
        if bs[i]<128: return n,i+1
    return None
class Bad(Exception):
    """The first bad field of a packet: its number and place."""
class Reader:
    # fields in order; bytes that are missing are field 11 at the packet's length
    def __init__(self,p,at): self.p=p; self.at=at
    def need(self,n):
        if len(self.p)-self.at<n: raise Bad(11,len(self.p))
    def take(self,n):
        self.need(n); self.at+=n
        return self.p[self.at-n:self.at]
    def id(self):
        at=self.at; n=int.from_bytes(self.take(2),"big")
        if n==0: raise Bad(7,at)
        return n
    def text(self,field,ok):
        at=self.at; n=int.from_bytes(self.take(2),"big"); t=self.take(n)
        if not ok(t): raise Bad(field,at)
        return t,at
    def end(self):
        if self.at<len(self.p): raise Bad(11,self.at)
def connect(r):
    at=r.at
    if r.take(6)!=b"\x00\x04MQTT": raise Bad(3,at)
    if r.take(1)!=b"\x04": return "level"
    at=r.at
    if r.take(1)!=b"\x00": raise Bad(4,at)
    r.take(2)
    t,at=r.text(5,is_text); r.end()
    return "CONNECT client %s at %d"%(esc(t),at)
def connack(r):
    at=r.at; present=r.take(1)[0]
    if present>1: raise Bad(4,at)
    at=r.at; code=r.take(1)[0]
    if code>5: raise Bad(9,at)
    r.end()
    return "CONNACK present %d code %d"%(present,code)
def hexa(b): return b.hex() if b else "-"
def publish(r,flags):
    q=flags>>1&3
    t,at=r.text(6,is_name)
    i=r.id() if q else 0
    pat=r.at; payload=r.p[pat:]
    if len(payload)>256: raise Bad(10,pat)
    return "PUBLISH dup %d qos %d id %d topic %s at %d payload %s at %d"%(flags>>3,q,i,esc(t),at,hexa(payload),pat)
def filters(r,name,graded):
    i=r.id(); out=[]; r.need(1)
    while r.at<len(r.p):
        if len(out)==8: raise Bad(11,r.at)
        t,at=r.text(8,is_filter); item=" %s at %d"%(esc(t),at)
        if graded:
            qat=r.at; q=r.take(1)[0]
            if q>2: raise Bad(9,qat)
            item+=" qos %d"%q
        out.append(item)
    return "%s id %d filters %d"%(name,i,len(out))+"".join(out)
def suback(r):
    i=r.id(); out=[]; r.need(1)
    while r.at<len(r.p):
        if len(out)==8: raise Bad(11,r.at)
        at=r.at; c=r.take(1)[0]
        if c>2 and c!=0x80: raise Bad(9,at)
        out.append(" %d"%c)
    return "SUBACK id %d codes %d"%(i,len(out))+"".join(out)
def ack(r,name):
    i=r.id(); r.end()
    return "%s id %d"%(name,i)
def dissect(p):
    try:
        if not p or p[0] not in LEGAL: raise Bad(1,0)
        l=length(p[1:])
        if l is None or l[0]>540 or l[0]!=len(p)-1-l[1]: raise Bad(2,1)
        t=p[0]>>4; name=NAMES[t-1]; r=Reader(p,1+l[1])
        if t==1: return connect(r)
        if t==2: return connack(r)
        if t==3: return publish(r,p[0]&15)
        if t==8: return filters(r,name,True)
        if t==9: return suback(r)
        if t==10: return filters(r,name,False)
        if t in (4,5,6,7,11): return ack(r,name)
        r.end()
        return name
    except Bad as e: return "bad %d %d"%e.args
def unesc(w):
    # only what esc writes is read
    out=bytearray(); i=0
    if w==b"-": return b""
    while i<len(w):
        if w[i]==0x5c:
            m=re.match(rb"\\x([0-9a-f]{2})",w[i:])
            if not m: return None
            out.append(int(m.group(1),16)); i+=4
        else: out.append(w[i]); i+=1
    return bytes(out) if out and esc(bytes(out)).encode()==w else None
def is_text(b):
    try: s=b.decode("utf-8")
    except UnicodeDecodeError: return False
    return "\0" not in s
def is_name(b): return 1<=len(b)<=64 and is_text(b) and b"+" not in b and b"#" not in b
def is_filter(b):
    if not(1<=len(b)<=64 and is_text(b)): return False
    ls=b.split(b"/")
    return all(l==b"+" or (l==b"#" and i==len(ls)-1) or not(b"+" in l or b"#" in l) for i,l in enumerate(ls))
def takes(f,t):
    f=f.split(b"/"); t=t.split(b"/")
    for i,l in enumerate(f):
        if l==b"#" and i==len(f)-1: return True
        if i>=len(t): return False
        if l!=b"+" and l!=t[i]: return False
    return len(f)==len(t)
def match(f,t):
    if not is_filter(f): return "bad filter"
    if not is_name(t): return "bad topic"
    return "yes" if takes(f,t) else "no"
def answer(line):
    w=[x for x in line.split(b" ") if x]
    if not w: return ""
    if w==[b"types"]: return types()
    if len(w)==2 and w[0]==b"dissect":
        if w[1]==b"-": return dissect(b"")+"\n"
        if re.fullmatch(rb"([0-9a-fA-F]{2})+",w[1]): return dissect(bytes.fromhex(w[1].decode()))+"\n"
    if len(w)==3 and w[0]==b"match":
        f,t=unesc(w[1]),unesc(w[2])
        if f is not None and t is not None: return match(f,t)+"\n"
    return "? "+esc(line)+"\n"
data=sys.stdin.buffer.read()
lines=data.split(b"\n")
if lines[-1]==b"": lines.pop()
sys.stdout.write("".join(answer(l) for l in lines))
