MOVE(ID,TO) ; moves a patient to another ward, if a bed is free there
 NEW B,FROM
 LOCK +^PAT(ID)
 SET FROM=$GET(^PAT(ID,"ward"))
 LOCK +(^WARD(FROM),^WARD(TO)) ; both wards in one claim: two moves can't wait for each other
 SET B=$$FREE^BED(TO)
 IF B="" LOCK  QUIT
 KILL ^WARD(FROM,"bed",$GET(^PAT(ID,"bed")))
 SET ^WARD(TO,"bed",B)=ID,^PAT(ID,"ward")=TO,^PAT(ID,"bed")=B
 LOCK  QUIT
