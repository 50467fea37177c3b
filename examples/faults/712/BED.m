NEXT(ID,W) ; gives a patient the ward's next bed
 LOCK +^WARD(W)
 SET B=$GET(^WARD(W,"last"))+1,^WARD(W,"last")=B,^WARD(W,"bed",B)=ID
 LOCK -^WARD(W) QUIT
