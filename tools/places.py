#!/usr/bin/env python3
"""Counts the places that docs/DESIGN-PASS.md speaks of, in crates/*/src of the tree that it is run at the top of:

    tools/places.py POINT     1a 1b 1c 1d 1e 2a 2b 2c 3a 3b 4a 4b 5a 5b 6a 6b 7a 7b 8
    tools/places.py           what each counts

File names are printed without crates/ and src/. Each goes by text, so what it finds is judged by eye.
"""
import collections
import difflib
import glob
import re
import subprocess
import sys


def shell(words):
    subprocess.run(["bash", "-c", words], check=False)



def p1a():
    """Own enums by shape: Result (a variant Refused/Against with numbers), Option (two variants, one of them bare), other."""
    c={}
    for f in sorted(glob.glob('crates/*/src/*.rt')):
        s=re.sub(r'//[^\n]*','',open(f).read())
        for m in re.finditer(r'\benum (\w+)\s*\{(.*?)\n\}',s,re.S):
            v=re.findall(r'(\w+)\s*(\([^)]*\)|\{[^}]*\})?\s*,',m[2])
            k='Result' if any(re.match('Refused|Against',a) and b for a,b in v) else 'Option' if len(v)==2 and sum(not b for a,b in v)==1 else 'other'
            c[k]=c.get(k,0)+1; print(k,f[7:].replace('/src','')+':'+m[1],re.sub(r'\s+',' ',m[2]).strip())
    print(c)


def p1b():
    """Flags with a value beside them: structs with a bool field; functions that answer bool and write through a &mut."""
    n=0
    for f in sorted(glob.glob('crates/*/src/*.rt')):
        s=re.sub(r'//[^\n]*','',open(f).read()); g=f[7:].replace('/src','')
        for m in re.finditer(r'struct (\w+)[^;{]*\{(.*?)\}',s,re.S):
            if ': bool' in m[2]: n+=1; print('struct',g+':'+m[1],re.findall(r'(\w+): bool',m[2]))
        for m in re.finditer(r'fn (\w+)\(([^()]*)\)\s*->\s*bool',s):
            if '&mut' in m[2]: n+=1; print('fn',g+':'+m[1],'answers bool, writes',re.findall(r'(\w+): &mut',m[2]))
    print(n)


def p1c():
    """Functions that answer a u32 that names a refusal."""
    R='DONE|NOT_WHOLE|TOO_MANY|BAD_BOX|BAD_RANGE|LINE_NUMBER|COORDINATE|NO_SUCH|COUNT_OVER|NO_ROOM|OUTSIDE|SUM_OVER|CROOKED|PAST_END|UNKNOWN|TOO_LONG|BAD_SCREEN|BAD_SIZE|BAD_FILE|OFF_TILE|BAD_SEGMENT|BAD_TEXT|TOO_DEEP|LEFT_OPEN'
    n=0
    for f in sorted(glob.glob('crates/*/src/*.rt')):
        s=re.sub(r'//[^\n]*','',open(f).read())
        for m in re.finditer(r'^( *)(?:pub(?:\(\w+\))? )?fn (\w+).*?^\1\}',s,re.S|re.M):
            r=re.search(r'->\s*(\w+)',m[0])
            if r and r[1]=='u32' and re.search(r'\b('+R+r')\b|Refusal::|\.number\(\)',m[0]): n+=1; print(f[7:].replace('/src','')+':'+m[2])
    print(n)


def p1d():
    """Uses of refusal numbers as constants of u32, by file."""
    shell(r"""grep -oE '\b(NOT_WHOLE|TOO_MANY|BAD_BOX|BAD_RANGE|LINE_NUMBER|COORDINATE|NO_SUCH|COUNT_OVER|NO_ROOM|OUTSIDE|SUM_OVER|CROOKED|PAST_END|UNKNOWN|TOO_LONG|BAD_SCREEN|BAD_SIZE|BAD_FILE|OFF_TILE|BAD_SEGMENT|BAD_TEXT|TOO_DEEP|LEFT_OPEN)\b' crates/*/src/*.rt | grep -v '^crates/panel/src/refusals.rt' | cut -d: -f1 | sort | uniq -c | awk '{n+=$1; print} END {print n" uses of refusal numbers as u32 constants, in "NR" files"}'
""")


def p1e():
    """Numbers for kinds: tags, stages, helpers, cases."""
    shell(r"""grep -nE 'const (END|FILL|SOLID|COLOR|JUMP|LENT|LISTS|FINE|AS_BEFORE): u32|fn (stage_no|stage_of|found_of)\b|^ *0x[0-9a-f]+ => |^ *[0-9] => super' crates/*/src/*.rt | sed -E 's/^crates\///' | cut -c1-110
""")


def p2a():
    """Functions with the same body but for names, types and literals."""
    K=set('fn let mut if else for in while loop match return as pub self Self true false break continue ref'.split())
    g=collections.defaultdict(list)
    for f in sorted(glob.glob('crates/*/src/*.rt')):
        s=re.sub(r'//[^\n]*','',open(f).read())
        for m in re.finditer(r'^( *)((?:pub(?:\(\w+\))? )?(?:unsafe )?(?:extern "C" )?fn (\w+).*?)^\1\}',s,re.S|re.M):
            t=m[2]; q=re.search(r'^ *\{',t,re.M); b=t[q.start():] if q else t[t.find('{'):]
            ids={}
            b=re.sub(r'[A-Za-z_]\w*|0x\w+|\d[\w.]*',lambda m:m[0] if m[0] in K else ids.setdefault(m[0],'v%d'%len(ids)),b)
            b=re.sub(r'\s+','',b)
            if len(b)>12: g[b].append(f[7:].replace('/src','')+':'+m[3])
    t=[l for b,l in sorted(g.items(),key=lambda x:-len(x[0])) if len(l)>1]
    for l in t: print(' '.join(l))
    print(len(t),'groups,',sum(map(len,t)),'functions: the same body but for names, types and literals')


def p2b():
    """Functions of 40 tokens or more, alike to nine tenths but for names and literals."""
    K=set('fn let mut if else for in while loop match return as pub self Self struct enum impl unsafe const true false break continue ref move where'.split())
    F=[];n=0
    for f in sorted(glob.glob('crates/*/src/*.rt')):
        s=re.sub(r'//[^\n]*','',open(f).read())
        for m in re.finditer(r'^( *)((?:pub(?:\(\w+\))? )?(?:unsafe )?(?:extern "C" )?fn (\w+).*?)^\1\}',s,re.S|re.M):
            t=m[2]; q=re.search(r'^ *\{',t,re.M); b=t[q.start():] if q else t[t.find('{'):]
            w=[x if x in K or not re.match(r'\w',x) else ('0' if x[0].isdigit() else 'x') for x in re.findall(r'\w+|[^\s\w]',b)]
            if len(w)>=40: F.append((f[7:].replace('/src','')+':'+m[3],w))
    for i in range(len(F)):
        for j in range(i+1,len(F)):
            a,b=F[i][1],F[j][1]
            if min(len(a),len(b))/max(len(a),len(b))<0.8: continue
            r=difflib.SequenceMatcher(None,a,b,autojunk=False)
            if r.quick_ratio()>=0.9 and r.ratio()>=0.9: n+=1; print('%.2f %d %s %s'%(r.ratio(),len(a),F[i][0],F[j][0]))
    print(n,'pairs of functions of 40 tokens or more, nine tenths alike but for names and literals')


def p2c():
    """Structs with the same field types, enums with the same payloads."""
    g=collections.defaultdict(list)
    for f in sorted(glob.glob('crates/*/src/*.rt')):
        s=re.sub(r'//[^\n]*','',open(f).read())
        for m in re.finditer(r'struct (\w+)(?:<[^>]*>)?\s*\{(.*?)\}',s,re.S):
            g[tuple(sorted(re.findall(r':\s*([^,\n]+)',m[2])))].append(f[7:].replace('/src','')+':'+m[1])
        for m in re.finditer(r'\benum (\w+)\s*\{(.*?)\n\}',s,re.S):
            g[('enum',)+tuple(sorted(re.sub(r'\s+',' ',b) for a,b in re.findall(r'(\w+)\s*(\([^)]*\)|\{[^}]*\})?\s*,',m[2])))].append(f[7:].replace('/src','')+':'+m[1])
    t=[(k,l) for k,l in g.items() if len(l)>1]
    for k,l in t: print(', '.join(k),'|',' '.join(l))
    print(len(t))


def p3a():
    """The loops."""
    shell(r"""grep -cE '^ *while\b' crates/*/src/*.rt | awk -F: '{n+=$2} END {print n}'
""")


def p3b():
    """Of each, whether its index goes by 1."""
    n=k=0
    for f in sorted(glob.glob('crates/*/src/*.rt')):
        L=open(f).read().split('\n'); fn=''
        for i,l in enumerate(L):
            m=re.match(r' *(?:pub(?:\(\w+\))? )?(?:unsafe )?(?:extern "C" )?fn (\w+)',l)
            if m: fn=m[1]
            if not re.match(r'\s*while\b',l): continue
            j=i+1
            while not L[j].startswith(' '*(len(l)-len(l.lstrip()))+'}'): j+=1
            body='\n'.join(L[i:j+1]); c=l.strip()[6:].rstrip(' {')
            one=[v for v in re.findall(r'\b(\w+) \+= 1;|\b(\w+) = \2 \+ 1;',body)]
            one=[a or b for a,b in one]; by=[v for v in one if re.search(r'\b'+v+r'\b',c)]
            n+=1; k+=bool(by); print(f[7:].replace('/src','')+':'+fn,'| while',c,'|','by 1' if by else 'not by 1','' if len(one)<2 else '(counts %s)'%','.join(one))
    print(n,'loops,',k,'count the index of their test by 1')


def p4a():
    """Functions for choosing, comparing, least and greatest, clearing, copying, naming by number."""
    shell(r"""grep -nE 'fn (pick\w*|one_if|\w+_if|min\w*|max\w*|smaller|larger|same\w*|size_of|copysign|raise|clear\w*|copy\w*|\w*_kind|stage_no|words_of|stepped|number|item|is_int|is_float|up_to_one|from_zero|slots_in|in_i32)\b' crates/*/src/*.rt | sed -E 's/^crates\/([^/]*)\/src/\1/; s/ *(pub(\(crate\))? )?fn /: /' | cut -c1-120
""")


def p4b():
    """Free functions over a type of their own crate; derives; impls of traits."""
    n=m_=0
    for f in sorted(glob.glob('crates/*/src/*.rt')):
        if 'groatpocket' in f: continue
        s=re.sub(r'//[^\n]*','',open(f).read())
        own=set(re.findall(r'\b(?:struct|enum) (\w+)',' '.join(re.sub(r'//[^\n]*','',open(g).read()) for g in glob.glob(f[:f.index('/src')]+'/src/*.rt'))))
        for m in re.finditer(r'^( *)(?:pub(?:\(\w+\))? )?fn (\w+)\(\s*(?:mut )?(\w+): &?(?:mut )?(\w+)',s,re.M):
            if m[4] in own: n+=1; print(f[7:].replace('/src','')+':'+m[2],'takes',m[4],'as its first parameter')
        m_+=len(re.findall(r'\bfn \w+\((?:&|&mut |mut )?self\b',s))
    print(n,'free functions over a type of their own crate;',m_,'methods')
    shell(r"""grep -hoE 'derive\([^)]*\)' crates/*/src/*.rt | sort | uniq -c; grep -nE 'impl \w+(<[^>]*>)? for' crates/*/src/*.rt | wc -l
""")


def p5a():
    """Facts that three functions or more require."""
    g=collections.defaultdict(set)
    for f in sorted(glob.glob('crates/*/src/*.rt')):
        s=re.sub(r'//[^\n]*','',open(f).read())
        for m in re.finditer(r'fn (\w+)(?:<[^>]*>)?\([^{]*?requires \{(.*?)\}\n',s,re.S):
            for c in re.split(r'\s×\s',m[2].strip()):
                c=re.sub(r'\s+',' ',c).strip()
                while c[:1]=='(' and c[-1:]==')' and c.count('(')==c.count(')') and re.fullmatch(r'[^()]*(\([^()]*(\([^()]*\)[^()]*)*\)[^()]*)*',c[1:-1]): c=c[1:-1].strip()
                g[re.sub(r'\.(old|now)\b','',c)].add(f[7:].replace('/src','')+':'+m[1])
    r=sorted([(len(l),c,sorted(l)) for c,l in g.items() if len(l)>=3],reverse=True)
    for n,c,l in r: print(n,'|',c,'|',' '.join(l))
    print(len(r),'facts required by three functions or more,',sum(x[0] for x in r),'times in all')


def p5b():
    """Groups of parameters, counted by functions; the crates."""
    for t in (
        ["path_nos", "coords", "paths"],
        ["backs", "counts", "refs"],
        ["work", "path_nos", "coords"],
        ["refs", "stored", "segments", "tags"],
        ["backdrops", "stored", "tally"],
        ["pace", "path", "up"],
        ["backs", "counts", "notes"],
        ["paths", "paints", "backdrops"],
        ["pixels", "width", "tx", "ty"],
        ["words", "segments", "pixels"],
        ["cols", "rows", "width"],
        ["work", "n"],
        ["work", "free", "lens", "n"],
        ["base", "code", "words"],
        ["area", "rgba", "fg"],
    ):
        n=set()
        for f in glob.glob('crates/*/src/*.rt'):
            s=re.sub(r'//[^\n]*','',open(f).read())
            for m in re.finditer(r'fn (\w+)(?:<[^>]*>)?\(([^()]*(?:\([^()]*\)[^()]*)*)\)',s,re.S):
                if set(t)<=set(re.findall(r'(\w+):',m[2])): n.add((f.split('/')[1],m[1]))
        print(len(n),'/'.join(t),'|',' '.join(sorted(set(a for a,b in n))))


def p6a():
    """Functions with a slice and a length or count beside it."""
    n=0
    for f in sorted(glob.glob('crates/*/src/*.rt')):
        s=re.sub(r'//[^\n]*','',open(f).read())
        for m in re.finditer(r'fn (\w+)(?:<[^>]*>)?\(([^()]*(?:\([^()]*\)[^()]*)*)\)',s,re.S):
            p=[(a,re.sub(r'\s+',' ',b).strip()) for a,b in re.findall(r'(?:mut )?(\w+):\s*([^,]+)',m[2])]
            sl=[a for a,b in p if re.match(r'&(mut )?\[',b)]
            ct=[a for a,b in p if a in ('n','m','free','len','used','many','count','most') and b in('usize','u32')]
            if sl and ct: n+=1; print(f[7:].replace('/src','')+':'+m[1],'|',','.join(sl),'| with',','.join(ct))
    print(n)


def p6b():
    """Local arrays used as room."""
    shell(r"""grep -nE 'let mut \w+(: \[[^]]*\])? = (\[|no_paths)' crates/*/src/*.rt | grep -vE 'crates/(traces|scene)/' | sed -E 's/^crates\///' | cut -c1-110
""")


def p7a():
    """`match` of three arms or more; and the number of function-typed values."""
    n=0
    for f in sorted(glob.glob('crates/*/src/*.rt')):
        L=re.sub(r'//[^\n]*','',open(f).read()).split('\n'); fn=''
        for i,l in enumerate(L):
            m=re.match(r' *(?:pub(?:\(\w+\))? )?(?:unsafe )?(?:extern "C" )?fn (\w+)',l)
            if m: fn=m[1]
            m=re.search(r'\bmatch (.*) \{$',l)
            if not m: continue
            ind=len(l)-len(l.lstrip()); j=i+1
            while not L[j].startswith(' '*ind+'}'): j+=1
            arms=[x for x in L[i+1:j] if re.match(' {%d}\\S.*=>'%(ind+4),x)]
            if len(arms)>=3: n+=1; print(f[7:].replace('/src','')+':'+fn,'|',len(arms),'arms | match',m[1])
    print(n)
    shell(r"""grep -nE '(: |-> |<|&)(impl |dyn )?[Ff]n(Mut|Once)?\(' crates/*/src/*.rt | wc -l
""")


def p7b():
    """Functions steered by a bool."""
    n=0
    for f in sorted(glob.glob('crates/*/src/*.rt')):
        if 'groatpocket' in f: continue
        s=re.sub(r'//[^\n]*','',open(f).read())
        for m in re.finditer(r'fn (\w+)(?:<[^>]*>)?\(([^()]*(?:\([^()]*\)[^()]*)*)\)',s,re.S):
            p=re.findall(r'(\w+): bool',m[2])
            if p: n+=1; print(f[7:].replace('/src','')+':'+m[1],','.join(p))
    print(n,'functions with a bool parameter')


def p8():
    """Files, answers, answers by one tactic alone."""
    shell(r"""A=$(find crates -path '*/proofs/*' -not -path '*/out/*' -name Answers.antt | wc -l); I=$(find crates -path '*/proofs/*' -not -path '*/out/*' -name Invariants.antt | wc -l); T=$(find crates -path '*/proofs/*' -not -path '*/out/*' -name '*.antt' | wc -l); echo "answers files $A, invariants files $I, other files of proofs $((T-A-I)) (of them Lib.antt: $(find crates -path '*/proofs/Lib.antt' -not -path '*/out/*' | wc -l)), lines $(find crates -path '*/proofs/*' -not -path '*/out/*' -name '*.antt' -print0 | xargs -0 cat | wc -l)"
echo "answers: $(find crates -path '*/proofs/*' -not -path '*/out/*' -name Answers.antt -print0 | xargs -0 grep -hE '^pub [^ ]+ : goal\.' | wc -l)"
echo "answers that are the words of a single tactic (search rules / omega arith / grind / cc):"; find crates -path '*/proofs/*' -not -path '*/out/*' -name Answers.antt -print0 | xargs -0 grep -hoE '^[^ ]+ c = (search rules|omega arith|grind|cc)$' | sed 's/.* = //' | sort | uniq -c
echo "answers equal to search rules only: $(find crates -path '*/proofs/*' -not -path '*/out/*' -name Answers.antt -print0 | xargs -0 grep -hE '^[^ ]+ c = search rules$' | wc -l)"
echo "decreases-loop lines: $(find crates -path '*/proofs/*' -not -path '*/out/*' -name Invariants.antt -print0 | xargs -0 grep -hE '^decreases' | wc -l)"
""")


POINTS = {name[1:]: it for name, it in list(globals().items()) if re.fullmatch(r"p\d\w?", name)}

if __name__ == "__main__":
    if len(sys.argv) > 1 and all(it in POINTS for it in sys.argv[1:]):
        for it in sys.argv[1:]:
            POINTS[it]()
    else:
        for name, it in POINTS.items():
            print(name, it.__doc__)
