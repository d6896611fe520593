ScriptName Game Hidden
{Stands for Game, but for what gives an instance: write a property in place of GetPlayer().}

Function DisablePlayerControls() Global Native

Function EnablePlayerControls() Global Native
