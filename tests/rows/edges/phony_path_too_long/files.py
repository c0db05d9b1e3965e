open('build.ninja','w').write('build a: phony ' + 'a' * 4097 + '\n')
