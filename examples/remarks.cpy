      * Nothing but remarks.
      * 01 FISH.
