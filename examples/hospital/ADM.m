ADMIT(ID,W) ; admits a patient to a ward, if a bed is free there
 NEW B
 LOCK +^PAT(ID),+^WARD(W)
 SET B=$$FREE^BED(W)
 IF B'="" SET ^WARD(W,"bed",B)=ID,^PAT(ID,"ward")=W,^PAT(ID,"bed")=B
 LOCK -^WARD(W),-^PAT(ID)
 QUIT
OUT(ID) ; discharges a patient, and charges the stay
 NEW B,W
 LOCK +^PAT(ID)
 SET W=$GET(^PAT(ID,"ward")),B=$GET(^PAT(ID,"bed"))
 IF W="" LOCK -^PAT(ID) QUIT
 LOCK +^WARD(W)
 KILL ^WARD(W,"bed",B),^PAT(ID,"ward"),^PAT(ID,"bed")
 DO STAY^BIL(ID)
 LOCK -^WARD(W),-^PAT(ID)
 QUIT
