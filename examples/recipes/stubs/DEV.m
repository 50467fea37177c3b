OPEN(FILE) ; opens a file and makes it current
 OPEN FILE:(NEWVERSION):5 IF  USE FILE
 QUIT
CLOSE(FILE) ; closes it
 CLOSE FILE
 QUIT
