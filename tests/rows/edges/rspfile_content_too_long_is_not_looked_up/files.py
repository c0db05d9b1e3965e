open('build.ninja','w').write('x = ' + 'a' * 600000 + '\nrule r\n  command = true\n  rspfile_content = $x$x\nbuild o: r\n')
