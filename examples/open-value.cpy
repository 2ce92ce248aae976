       01  PEN.
           05  PEN-ID        PIC X(4).
           05  REMARK        PIC X(20) VALUE 'the farmer's pen'.
           05  STOCKED       PIC 9(8).
