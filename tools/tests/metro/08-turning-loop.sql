SELECT '(Station ''' || source || ''')', '[TRACK #' || number || ']', line FROM TRACK WHERE source = target;
