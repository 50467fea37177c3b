LOW(MIN) ; lists the items of which fewer than MIN pieces are left
 N I S I=""
 L +^STK:5 E  W !,"the stock is in use" Q
 F  S I=$O(^STK(I)) Q:I=""  I ^STK(I)<MIN W !,I
 L -^STK Q
