MODULE Deliver;
FROM Depot IMPORT Part, Parts, parts;
FROM InOut IMPORT WriteString, WriteLn;

TRANSACTION deliver;
BEGIN
  parts :+ Parts{Part{100, 12}, Part{200, 7}};
  parts :+ Parts{Part{300, 0}}
END deliver;

BEGIN
  WriteString('three parts'); WriteLn;
  deliver;
  WriteString('are in the depot'); WriteLn
END Deliver.
