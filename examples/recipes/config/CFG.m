PRICE(CODE) ; the price of a service, read under the configuration's lock
 NEW SUM
 LOCK +^CFG SET SUM=$GET(^CFG("price",CODE)) LOCK -^CFG
 QUIT SUM
EDIT(CODE,SUM) ; the office changes a price
 LOCK +^CFG:10 ELSE  QUIT 0
 SET ^CFG("price",CODE)=SUM,^CFG("changed")=$HOROLOG
 LOCK -^CFG QUIT 1
CHARGE(ID,CODE) ; prices are asked for under a patient's lock
 LOCK +^BILL(ID)
 SET ^BILL(ID,CODE)=$$PRICE(CODE)
 LOCK -^BILL(ID) QUIT
NIGHT ; a long run reads all of it once, into locals
 NEW CFG,ID
 LOCK +^CFG MERGE CFG=^CFG LOCK -^CFG
 SET ID="" FOR  LOCK +^BILL SET ID=$ORDER(^BILL(ID)) LOCK -^BILL QUIT:ID=""  DO DAY(ID,$GET(CFG("price","day")))
 QUIT
DAY(ID,SUM) LOCK +^BILL(ID) SET ^BILL(ID,"day")=SUM LOCK -^BILL(ID) QUIT
