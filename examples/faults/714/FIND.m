SEEN(WHO) ; notes that a person was here today
 NEW ID DO FIND(WHO,.ID) QUIT:ID=""
 LOCK +^REG(ID) SET ^REG(ID,"seen")=$HOROLOG LOCK -^REG(ID) QUIT
FIND(WHO,N) ; the number that belongs to a name
 LOCK +^NAME SET N=$GET(^NAME(WHO)) LOCK -^NAME QUIT
