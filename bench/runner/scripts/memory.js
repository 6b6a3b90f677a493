function $start(){
  var $a = [];
  while(true){
    $a.push($a);
  }
}
$start();
