ScriptName Screen Hidden
{Stands for the calls of Debug that show a text to the player. The scene binds both as traces.}

Function Notification(String asText) Global Native

Function MessageBox(String asText) Global Native
