; holds one account over two lines
MOVE LOCK +^ACCT("A") ; from here on
 SET ^ACCT("A","bal")="0" SET ^ACCT("A","log",1)="moved"
 LOCK -^ACCT("A")
 QUIT
