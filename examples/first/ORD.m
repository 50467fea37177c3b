ORD(NO,I,N) ; order NO: N pieces of item I
 N QTY
 L +^STK(I)
 S QTY=$G(^STK(I)) I QTY<N W !,"out of stock" Q
 L +^ORD(NO)
 S ^ORD(NO)=I_"^"_N_"^"_($G(^PRC(I))*N),^STK(I)=QTY-N
 L -^ORD(NO),-^STK(I) Q
DEL(NO) ; order NO is taken back, and its goods are in stock again
 N I,R
 L +^ORD(NO)
 S R=$G(^ORD(NO)),I=$P(R,"^")
 I I'="" L +^STK(I) S ^STK(I)=$G(^STK(I))+$P(R,"^",2) K ^ORD(NO) L -^STK(I)
 L -^ORD(NO) Q
