CLOSE ; closes the day at the five desks of a branch
 LOCK +^ACCT("d1"):9,+^ACCT("d2"):9,+^ACCT("d3"):9,+^ACCT("d4"):9,+^ACCT("d5"):9
 ELSE  LOCK  QUIT
 SET (^ACCT("d1"),^ACCT("d2"),^ACCT("d3"),^ACCT("d4"),^ACCT("d5"))=0
 LOCK  QUIT
