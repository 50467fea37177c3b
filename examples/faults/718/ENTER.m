ENTER(NAME) ; enters a person under the next number
 NEW ID SET ID=$$CLAIM()
 SET ^REG(ID,"name")=NAME LOCK -^REG(ID) QUIT
CLAIM() ; takes the next number, and locks its record
 NEW N LOCK +^SEQ SET N=$GET(^SEQ)+1,^SEQ=N LOCK -^SEQ
 LOCK +^REG(N) QUIT N
