ADMIT(ID,W,B) ; admits patient ID to bed B of ward W, if it is free
 LOCK +^PAT(ID),+^WARD(W) ; the patient first, then the ward
 IF '$DATA(^WARD(W,"bed",B)) SET ^WARD(W,"bed",B)=ID,^PAT(ID,"bed")=B
 LOCK -^WARD(W),-^PAT(ID) QUIT
MOVE(ID,W,FROM,TO) ; moves a patient to another bed of the ward, if it is free
 LOCK +^PAT(ID)
 IF '$DATA(^WARD(W,"bed",TO)) SET ^WARD(W,"bed",TO)=ID KILL ^WARD(W,"bed",FROM)
 LOCK -^PAT(ID) QUIT
