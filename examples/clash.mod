MODULE Clash;
FROM Depot IMPORT Part, Parts, parts;
FROM InOut IMPORT WriteString, WriteLn;

TRANSACTION deliver;
BEGIN
  parts :+ Parts{Part{400, 1}};
  parts :+ Parts{Part{100, 13}}
END deliver;

BEGIN
  WriteString('another stock of part 100'); WriteLn;
  deliver;
  WriteString('never printed'); WriteLn
END Clash.
