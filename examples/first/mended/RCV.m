RCV(I,N) ; N pieces of item I come in
 L +^STK(I)
 S ^STK(I)=$G(^STK(I))+N
 L -^STK(I)
 Q
