import re,sys
src=open(sys.argv[1]).read()
out=[src]
src2=src
for m in re.finditer(r'^define internal (?:noundef )?(i64) @"capi::(dekohuna_\w+)"\(([^)]*)\) #0', src, re.M):
    ret,name,args=m.groups()
    params=[];body=[];call=[]
    for i,a in enumerate(args.split(', ')):
        t=a.split()[0]
        if t=='ptr':
            params+= [f'ptr noundef %p{i}', f'i64 noundef %n{i}']
            body+= [f'  %s{i} = alloca {{ ptr, i64 }}, align 8', f'  store ptr %p{i}, ptr %s{i}, align 8', f'  %q{i} = getelementptr inbounds i8, ptr %s{i}, i64 8', f'  store i64 %n{i}, ptr %q{i}, align 8']
            call.append(f'ptr noundef %s{i}')
        else:
            params.append(f'{t} noundef %p{i}'); call.append(f'{t} noundef %p{i}')
    out.append(f'define i64 @{name}({", ".join(params)}) #0 {{\n'+'\n'.join(body)+f'\n  %r = call i64 @"capi::{name}"({", ".join(call)})\n  ret i64 %r\n}}\n')
open(sys.argv[2],'w').write('\n'.join(out))
