class Dinner {
