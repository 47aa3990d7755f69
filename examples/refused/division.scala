object Main {
  def main(): Unit = {
    println(8 / 2)
  }
}
