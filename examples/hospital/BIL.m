BILL(ID,CODE) ; charges a patient for a service
 LOCK +^PAT(ID)
 DO CHARGE(ID,CODE,$GET(^PRICE(CODE)))
 LOCK -^PAT(ID)
 QUIT
STAY(ID) ; charges a stay; whoever calls holds the patient
 DO CHARGE(ID,"stay",$GET(^PRICE("stay")))
 QUIT
CHARGE(ID,CODE,SUM) ; writes a charge under the next number
 NEW N
 SET N=$$NEXT()
 SET ^BILL(ID,N)=CODE_" "_SUM
 QUIT
NEXT() ; the next number of a bill
 NEW N
 LOCK +^SEQ
 SET N=$GET(^SEQ)+1,^SEQ=N
 LOCK -^SEQ
 QUIT N
