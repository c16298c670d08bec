DATABASE MODULE Depot;
TYPE
  Part = RECORD number, stock: CARDINAL END;
  Parts = RELATION number OF Part;
VAR
  parts: Parts;
END Depot.
