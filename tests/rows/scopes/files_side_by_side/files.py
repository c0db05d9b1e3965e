words = ['include', 'subninja'] * 35
for number in range(70):
    open(f'c{number}','w').write(f'build a{number}: r\n')
open('build.ninja','w').write('rule r\n  command = true\n' + ''.join(f'{word} c{number}\n' for number, word in enumerate(words)))
