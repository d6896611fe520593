ScriptName B
Int number_of_the_variable_1 = 1
Int number_of_the_variable_2 = 2
Int number_of_the_variable_3 = 3
Int number_of_the_variable_4 = 4
Int number_of_the_variable_5 = 5
Int number_of_the_variable_6 = 6
Int number_of_the_variable_7 = 7
Int number_of_the_variable_8 = 8
Int number_of_the_variable_9 = 9
