OPEN(FILE) ; replaces OPEN^DEV: $TEST may be 0 or 1 after it; no lock, no global, no local changes
 IF $RANDOM(2)
 QUIT
CLOSE(FILE) ; replaces CLOSE^DEV
 QUIT
