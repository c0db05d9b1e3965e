path = 'a' * 4096
open('build.ninja','w').write(f'rule r\n  command = true\nbuild {path}: r\ndefault {path}\n')
