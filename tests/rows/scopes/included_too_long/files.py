open('c.ninja','w').write('#' * 16777217)
