object Main {
def main(): Unit = {
println(2 + 3 * 4 - 5)
}
}
