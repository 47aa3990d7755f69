object Main {
  def main(): Unit = {
    println('a')
  }
}
