ScriptName A
String Property T Auto
