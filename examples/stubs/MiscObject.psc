ScriptName MiscObject extends Form
{A form that is nothing but itself. Write others like it: Potion, Weapon, Spell, Faction.}
