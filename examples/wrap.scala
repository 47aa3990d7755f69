object Main {
  def main(): Unit = {
    println(2147483647)
    println(2147483647 + 1)
    println(0 - 2147483647 - 1)
    println(0 - 2147483647 - 2)
    println(2147483647 + 2147483647)
    println(65536 * 32768)
    println(65536 * 65536)
    println(46341 * 46341)
    println(2147483647 * 2147483647)
    println(1103515245 * 12345 + 12345)
    println(2147483647 + 1 - 1)
    println(1 * 2 * 3 * 4 * 5 * 6 * 7 * 8 * 9 * 10 * 11 * 12 * 13)
  }
}
