RCV(I,N) ; N pieces of item I come in
 S ^STK(I)=$G(^STK(I))+N
 Q
