ScriptName Message extends Form
{Stands for Message. The scene says which button was pressed, and how long the box is open.}

Int Function Show() Native
