MOVE(ID,FROM,NEXT) ; moves a patient to another ward
 LOCK +^WARD(FROM)
 KILL ^WARD(FROM,"bed",ID)
 LOCK +^WARD(NEXT)
 SET ^WARD(NEXT,"bed",ID)=1
 LOCK -^WARD(NEXT),-^WARD(FROM)
 QUIT
COUNT(W) ; counts one more visit of a ward
 SET ^WARD(W,"visits")=$GET(^WARD(W,"visits"))+1
 QUIT
